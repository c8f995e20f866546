/* What the C programs of this folder share: types, ports, and the mark of an interrupt procedure. */
typedef unsigned char byte;
typedef unsigned short word;
#define NOINLINE static __attribute__((noinline))
#define INTERRUPT __attribute__((interrupt, target("general-regs-only")))
static inline byte in(word port) { byte v; __asm__ volatile("inb %1, %0" : "=a"(v) : "Nd"(port)); return v; }
static inline void out(word port, byte v) { __asm__ volatile("outb %0, %1" : : "a"(v), "Nd"(port)); }
static inline void enable(void) { __asm__ volatile("sti; nop"); }
static inline void disable(void) { __asm__ volatile("cli"); }
static inline void halt(void) { __asm__ volatile("sti; hlt"); }
