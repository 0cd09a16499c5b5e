#include "shape.h"
class Circle : public Shape {
  double radius = 1;
public:
  double area() override { return twice(radius); }
};
double twice(double x) { return x + x; }
double measure(Shape &s) { return s.area(); }
