/* Loads of the packet as programs had them before bpf_skb_load_bytes: compilers write LD_ABS or LD_IND for them. The numbers are in the
 * byte order of the machine. A program ends with 0 if the packet is too short. */
unsigned long long packet_byte(void *skb, unsigned long long at) __asm__("llvm.bpf.load.byte");
unsigned long long packet_half(void *skb, unsigned long long at) __asm__("llvm.bpf.load.half");
unsigned long long packet_word(void *skb, unsigned long long at) __asm__("llvm.bpf.load.word");
