//! C type spellings that a hand slips on.

#[rustfmt::skip]
pub const SPELLINGS: &[&str] = &[
    // Every spelling that the original knows.
    "_Bool", "bool", "size_t", "uintptr_t", "uint64_t", "uint32_t", "uint16_t", "uint8_t",
    "int64_t", "intptr_t", "ssize_t", "int32_t", "int16_t", "int8_t", "char", "short",
    "short int", "int", "long", "long int", "long long", "long long int", "",
    // The same with a sign said.
    "unsigned", "signed", "unsigned char", "signed char", "char unsigned", "char signed",
    "unsigned short", "signed short", "unsigned short int", "short unsigned int",
    "short int unsigned", "signed short int", "unsigned int", "int unsigned", "signed int",
    "int signed", "unsigned long", "long unsigned", "unsigned long int", "long unsigned int",
    "long int unsigned", "unsigned long long", "long unsigned long", "long long unsigned",
    "unsigned long long int", "long unsigned long int", "long long int unsigned",
    "signed long long int", "unsigned signed", "signed unsigned", "unsigned signed char",
    "signed unsigned int", "unsigned unsigned", "unsigned unsigned char",
    "unsigned int8_t", "unsigned int16_t", "unsigned int32_t", "unsigned int64_t",
    "unsigned intptr_t", "unsigned ssize_t", "signed uint8_t", "signed uint16_t",
    "signed uint32_t", "signed uint64_t", "signed size_t", "unsigned size_t",
    "unsigned _Bool", "signed bool", "unsigned bool",
    // Words in an order the original has no place for.
    "int short", "int long", "long int long", "int long long", "long short", "short short",
    "short long", "short char", "char char", "int int", "int char", "unsigned int short",
    "unsigned long int long", "long long long", "long double", "unsigned long double",
    // Qualifiers.
    "const", "volatile", "const volatile", "const int", "int const", "volatile char",
    "char volatile", "const unsigned", "unsigned const", "unsigned const char",
    "const unsigned volatile short const int", "short const int", "long const long",
    "long volatile long const int", "const const", "const bool", "volatile _Bool const",
    "const uint8_t", "int8_t const volatile", "restrict", "int restrict", "static int",
    // Blanks.
    " ", "   ", " int", "int ", "  int  ", "unsigned  char", "short  int", " short   int ",
    "long  long", "long   long   int", "  unsigned   long  ", " const ", " unsigned ",
    "  uint8_t", "int16_t  ", " char", "char ",
    // Names that have a keyword as a part, or are near one.
    "unsignedchar", "unsigned_char", "myint", "int_", "_int", "integer", "chars", "uchar",
    "shortint", "longlong", "uint", "ushort", "u8", "Bool", "BOOL", "_bool", "__Bool", "INT",
    "Unsigned", "constant", "const_int", "constint", "volatileint", "int8", "int_8_t",
    "uint8_tx", "xuint8_t", "uint128_t", "unsigned uint128_t", "int24_t", "size_t_", "ssize",
    "float", "double", "void", "void ", "unsigned void", "struct x", "struct int",
    "unsigned struct x", "enum unsigned", "struct unsigned x", "x unsigned y",
    "int,unsigned", "int;", "int[4]", "char(8)", "~", "!", "#",
    // Pointers.
    "*", " *", "* ", " * ", "**", "* *", " ** ", "***", "int *", "int*", "int * ", " int *",
    "int **", "int**", "int * *", "int ***", "int ** *", "unsigned *", "unsigned*",
    "unsigned * ", "signed *", "char *", "char*", "unsigned char *", "char unsigned*",
    "short *", "short int*", "unsigned short int *", "int short *", "long *", "long long *",
    "unsigned long int*", "bool *", "_Bool*", "size_t *", "uint8_t *", "uint8_t*",
    "uint16_t  *", "uint32_t *", "uint64_t *", "int8_t *", "int16_t *", "int32_t *",
    "int64_t *", "signed uint8_t *", "unsigned int8_t *", "const*", "const *", "volatile *",
    "const volatile *", "const int *", "int const *", "const unsigned *", "const char*",
    "unsigned const*", "void *", "void*", "void **", "const void *", "struct x *",
    "struct x*", "struct unsigned x *", "unsigned struct x *", "float *", "double*",
    "int (*", "int (*)", "int (*)(void)", "int (*) *", "x*y*", "*x", "*int", "* int",
    "*int *", "* unsigned *", "*unsigned*", "unsigned*char*", "unsigned* char *",
    // Pointers that do not end in their star.
    "char *const", "char * const", "char* const", "int *const", "int * const volatile",
    "unsigned * const", "unsigned *const", "unsigned *volatile", "const char *const",
    "* const", "*const", "const * const", "char *const *", "char * const *",
    "unsigned *const *", "unsigned * const*", "int *restrict", "int * unsigned",
    "unsigned * unsigned", "* unsigned", "*unsigned", "char *x", "char * x",
    // Bool with its qualifiers in every position, and with words that keep it from being one.
    "bool const", "volatile bool", "_Bool volatile", "const volatile bool", "const bool volatile",
    "bool volatile const", "const bool const", "volatile volatile _Bool", "_Bool const const",
    "const volatile bool const", " volatile  _Bool  const ", "  bool", "const bool *",
    "bool const*", "volatile _Bool const * ", "bool **", "_Bool * *", "bool unsigned",
    "signed const _Bool", "unsigned volatile bool const", "bool unsigned *", "bool bool",
    "bool _Bool", "bool int", "const*bool", "*bool", "bool *const", "bool* *const", "bool;",
    "struct bool", "enum bool *", "restrict bool", "boolean_t", "bool_t", "bool8", "my_bool *",
];
