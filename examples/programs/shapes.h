#ifndef SHAPES
#define SHAPES
#define AREA(s) ((s).width * (s).height)
struct shape { int width; int height; };
#endif
