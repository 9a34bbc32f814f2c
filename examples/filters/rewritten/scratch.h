/* The five scratch words of a kernel's context, skb->cb, which a program may write. The host's context ends before them. */
#define scratch(skb, number) (((u32 *)(skb))[12 + (number)])
