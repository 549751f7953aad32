// header.cc - the same test as C++.
#include "header.c"
