class Shape {
public:
  virtual double area() { return 0; }
};
double twice(double x);
