// The numbers of the host: the module is compiled for 64 bits, and addresses lie below 2 to the 32.
typedef unsigned long word;
typedef long number;
typedef unsigned int half;
typedef unsigned char byte;
