int less(double x, double y) { return x < y; }
