/* For tests/masks: what its reader of machine code has to find, and what it must not. */
unsigned elsewhere(unsigned a);

__attribute__((noipa)) static unsigned deeper(unsigned a, unsigned b) { return a % b; }
__attribute__((noipa)) static unsigned deep(unsigned a, unsigned b) { return deeper(a, b) + 1; }
__attribute__((noipa, section(".fast"))) static unsigned apart(unsigned a, unsigned b) { return a / b; }

unsigned by_calls(unsigned a, unsigned b) { return deep(a, b) + 1; }
unsigned by_section(unsigned a, unsigned b) { return apart(a, b) + 1; }
unsigned by_jump(unsigned a, unsigned b) { return deeper(b, a); }
double by_floats(double a, double b) { return a / b; }
unsigned by_another_file(unsigned a) { return elsewhere(a) + 1; }
unsigned by_pointer(unsigned (*f)(unsigned), unsigned a) { return f(a) + 1; }
unsigned by_pointer_jump(unsigned (*f)(unsigned), unsigned a) { return f(a); }
unsigned by_mask(unsigned a, unsigned b) { return a & ~(b - 1); }
unsigned by_table(unsigned k, unsigned a, unsigned b) {
    switch (k) { case 0: return a + b; case 1: return a ^ b; case 2: return a & b; case 3: return a * b; case 4: return a / b; case 5: return a - b; }
    return a;
}
unsigned by_table_of_masks(unsigned k, unsigned a, unsigned b) {
    switch (k) { case 0: return a + b; case 1: return a ^ b; case 2: return a & b; case 3: return a * b; case 4: return a | b; case 5: return a - b; }
    return a;
}
unsigned by_table_of_calls(unsigned k, unsigned a, unsigned b) {
    switch (k) { case 0: return a + b; case 1: return a ^ b; case 2: return a & b; case 3: return a * b; case 4: return deeper(a, b); case 5: return a - b; }
    return a;
}
