// Reads expressions, and prints their values: virtual calls, exceptions that are caught, streams, a hash table.
#include <iomanip>
#include <iostream>
#include <memory>
#include <sstream>
#include <stdexcept>
#include <string>
#include <unordered_map>
#include <vector>

struct Node {
    virtual ~Node() = default;
    virtual double value(double x) const = 0;
};

struct Number : Node {
    double number;
    explicit Number(double given) : number(given) {}
    double value(double) const override { return number; }
};

struct Variable : Node {
    double value(double x) const override { return x; }
};

struct Operation : Node {
    char sign;
    std::unique_ptr<Node> left, right;
    Operation(char given, std::unique_ptr<Node> first, std::unique_ptr<Node> second)
        : sign(given), left(std::move(first)), right(std::move(second)) {}
    double value(double x) const override {
        double a = left->value(x), b = right->value(x);
        switch (sign) {
        case '+': return a + b;
        case '-': return a - b;
        case '*': return a * b;
        default:
            if (b == 0) throw std::domain_error("division by zero");
            return a / b;
        }
    }
};

class Parser {
    std::string text;
    size_t at = 0;

    bool sees(const char *signs) const { return at < text.size() && std::string(signs).find(text[at]) != std::string::npos; }

    std::unique_ptr<Node> atom() {
        if (sees("(")) {
            at++;
            auto inner = sum();
            if (!sees(")")) throw std::runtime_error("a parenthesis is open at " + std::to_string(at));
            at++;
            return inner;
        }
        if (sees("x")) {
            at++;
            return std::make_unique<Variable>();
        }
        size_t length = 0;
        double number = std::stod(text.substr(at), &length);
        at += length;
        return std::make_unique<Number>(number);
    }

    std::unique_ptr<Node> product() {
        auto left = atom();
        while (sees("*/")) {
            char sign = text[at++];
            left = std::make_unique<Operation>(sign, std::move(left), atom());
        }
        return left;
    }

public:
    explicit Parser(std::string given) : text(std::move(given)) {}

    std::unique_ptr<Node> sum() {
        auto left = product();
        while (sees("+-")) {
            char sign = text[at++];
            left = std::make_unique<Operation>(sign, std::move(left), product());
        }
        return left;
    }
};

int main() {
    std::unordered_map<std::string, int> failures;
    for (std::string text : {"1+2*3", "(x+1)*(x-1)", "1/(x-2)", "(1+", "abc", "3*x*x-2*x+0.5"}) {
        try {
            auto node = Parser(text).sum();
            for (double x : {0.0, 1.5, 2.0}) {
                std::cout << text << " at " << x << " is " << std::setprecision(6) << node->value(x) << "\n";
            }
        } catch (std::exception &error) {
            std::cout << text << ": " << error.what() << "\n";
            failures[error.what()]++;
        }
    }
    std::cout << failures.size() << " kinds of failures" << std::endl;
}
