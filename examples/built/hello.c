#include <stdio.h>

#ifndef GREETING
#define GREETING "hello"
#endif

int main(void)
{
	puts(GREETING);
	return 0;
}
