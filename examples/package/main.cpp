#include "shape.h"
double measure(Shape &s);
int main() {
  Shape s;
  return twice(measure(s)) > 1;
}
