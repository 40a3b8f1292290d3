"""What a module is answered with: the status and the line of its first fault, or none."""
TAKEN = (0, "")
OUTSIDE = (6, "invalid: module")


def malformed(place):
    """The bytes encode no module; whole sections in order end at this place."""
    return 5, f"malformed: at {place}"


def invalid(function):
    """This function is the first whose body has no typing."""
    return 6, f"invalid: function {function}"


def unsupported(function, number, feature):
    """An instruction of a class that is refused, by its function and its number there."""
    return 7, f"unsupported: function {function} instruction {number} {feature}"


def limit(which, value):
    """A quantity is past its limit."""
    return 8, f"limit: {which} {value}"


def reserved(number):
    """This import has a reserved name."""
    return 8, f"reserved: import {number}"
