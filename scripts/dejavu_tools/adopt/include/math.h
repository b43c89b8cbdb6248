#ifndef _MATH_H
#define _MATH_H
double ceil(double x);
double cos(double x);
double exp(double x);
double fabs(double x);
double floor(double x);
double fmod(double x, double y);
double log(double x);
double pow(double x, double y);
double round(double x);
double sin(double x);
double sqrt(double x);
double tan(double x);
#endif
