/* An enumeration of 10,000 names, which a debugger is to know. */

#include "contract.h"

#define A(n) n##0, n##1, n##2, n##3, n##4, n##5, n##6, n##7, n##8, n##9
#define B(n) A(n##0), A(n##1), A(n##2), A(n##3), A(n##4), A(n##5), A(n##6), A(n##7), A(n##8), A(n##9)
#define C(n) B(n##0), B(n##1), B(n##2), B(n##3), B(n##4), B(n##5), B(n##6), B(n##7), B(n##8), B(n##9)
#define D(n) C(n##0), C(n##1), C(n##2), C(n##3), C(n##4), C(n##5), C(n##6), C(n##7), C(n##8), C(n##9)

enum name { D(name) };

void contract(const u8 *input, u32 length) {
    volatile enum name name = name0007;
    u8 byte = name;
    return_output(&byte, 1);
}
