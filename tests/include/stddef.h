/* The kit has no headers: this is what senruhobi.h needs of this one, in the compiler's own words. */
typedef __SIZE_TYPE__ size_t;
