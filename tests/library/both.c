/* The header of the library and that of filters in one file, for C and C++. */
#include <bpfhost.h>
#include <bpfhost/filter.h>

int main(void)
{
    const struct __sk_buff skb = {1, 2, 3, 4, 5, 6, 7, 8, 9, 10, 11};
    bpfhost_context context = {2, 3, 4, 5, 6, 7, 8, 9, 10, 11};
    return bpf_map_lookup_elem != NULL && skb.ifindex == context.ifindex && bpfhost_library_version() == BPFHOST_VERSION_NUMBER ? BPF_ANY
                                                                                                                               : BPF_EXIST;
}
