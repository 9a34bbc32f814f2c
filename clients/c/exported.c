/* The functions of bpfhost.h as symbols of the shared library, for callers without a C compiler, as ctypes, Node, Java or Go.
 * tools/shared-library compiles this file with the library. A symbol is another name of the header's own function, and has the version of the
 * library's soname. Of data the file has only constants. */
#include <bpfhost.h>

#define TEXT_OF(number) #number
#define TEXT(number) TEXT_OF(number)
#define NODE "BPFHOST_" TEXT(BPFHOST_VERSION_MAJOR) "." TEXT(BPFHOST_VERSION_MINOR)
#define EXPORT(name) \
    extern __typeof__(name) exported_##name __attribute__((alias(#name))); \
    __asm__(".symver exported_" #name ", " #name "@@" NODE)

/* Each of the header's functions, in its order (tools/tests/test_shared_library.py). */
EXPORT(bpfhost_version);
EXPORT(bpfhost_library_version);
EXPORT(bpfhost_are_apart);
EXPORT(bpfhost_word_of);
EXPORT(bpfhost_are_beside);
EXPORT(bpfhost_are_disjoint);
EXPORT(bpfhost_pair_code);
EXPORT(bpfhost_memory_of);
EXPORT(bpfhost_enter);
EXPORT(bpfhost_leave);
EXPORT(bpfhost_give_back);
EXPORT(bpfhost_lent_code);
EXPORT(bpfhost_is_beside_lent);
EXPORT(bpfhost_bytes_at);
EXPORT(bpfhost_random_seed);
EXPORT(bpfhost_new);
EXPORT(bpfhost_frame_code);
EXPORT(bpfhost_is_frame_right);
EXPORT(bpfhost_copy);
EXPORT(bpfhost_handle_by_pairs);
EXPORT(bpfhost_handle);
EXPORT(bpfhost_lend);
EXPORT(bpfhost_may_empty);
EXPORT(bpfhost_handle_lent_by_pairs);
EXPORT(bpfhost_handle_lent);
EXPORT(bpfhost_context_at);
EXPORT(bpfhost_context_words);
EXPORT(bpfhost_contexts_code);
EXPORT(bpfhost_packets_code);
EXPORT(bpfhost_written_code);
EXPORT(bpfhost_run_code);
EXPORT(bpfhost_run_given);
EXPORT(bpfhost_are_packets_beside);
EXPORT(bpfhost_are_written_beside);
EXPORT(bpfhost_is_run_right);
EXPORT(bpfhost_run_by_pairs);
EXPORT(bpfhost_run_up_to);
EXPORT(bpfhost_run_packets_sized);
EXPORT(bpfhost_run_packets_with);
EXPORT(bpfhost_run_packets);
EXPORT(bpfhost_run_bounded_sized);
EXPORT(bpfhost_run_bounded_with);
EXPORT(bpfhost_run_bounded);
EXPORT(bpfhost_gather);
EXPORT(bpfhost_span_code);
EXPORT(bpfhost_scattered_code);
EXPORT(bpfhost_are_scattered_beside);
EXPORT(bpfhost_is_scattered_right);
EXPORT(bpfhost_scattered_by_pairs);
EXPORT(bpfhost_scattered_run_code);
EXPORT(bpfhost_scattered_status);
EXPORT(bpfhost_run_some);
EXPORT(bpfhost_run_anywhere);
EXPORT(bpfhost_run_scattered);
EXPORT(bpfhost_allowed_packets);
EXPORT(bpfhost_run_bounded_scattered);
EXPORT(bpfhost_save_part);
EXPORT(bpfhost_save);
EXPORT(bpfhost_memory_refused);
EXPORT(bpfhost_free);
EXPORT(bpfhost_counts_of);
EXPORT(bpfhost_memory_held);
EXPORT(bpfhost_status);
EXPORT(bpfhost_describe);
EXPORT(bpfhost_program_cost);
EXPORT(bpfhost_list);
EXPORT(bpfhost_verify_as);
EXPORT(bpfhost_verify);
EXPORT(bpfhost_put16);
EXPORT(bpfhost_put32);
EXPORT(bpfhost_put64);
EXPORT(bpfhost_put_head);
EXPORT(bpfhost_put_bytes);
EXPORT(bpfhost_get16);
EXPORT(bpfhost_get32);
EXPORT(bpfhost_frame_begin);
EXPORT(bpfhost_frame_map_create);
EXPORT(bpfhost_may_copy);
EXPORT(bpfhost_frame_of_key);
EXPORT(bpfhost_frame_map_lookup);
EXPORT(bpfhost_frame_map_delete);
EXPORT(bpfhost_frame_map_next_key);
EXPORT(bpfhost_frame_map_update);
EXPORT(bpfhost_frame_prog_load);
EXPORT(bpfhost_frame_test_run_head);
EXPORT(bpfhost_frame_prog_test_run);
EXPORT(bpfhost_frame_close);
EXPORT(bpfhost_read_fields);
EXPORT(bpfhost_read_reply);
EXPORT(bpfhost_read_reply_sized);
EXPORT(bpfhost_ask_by_pairs);
EXPORT(bpfhost_ask);
EXPORT(bpfhost_ask_sized);
EXPORT(bpfhost_result_code);
EXPORT(bpfhost_object_code);
EXPORT(bpfhost_set_result);
EXPORT(bpfhost_carry_out);
EXPORT(bpfhost_carry_out_long);
EXPORT(bpfhost_carry_out_on);
EXPORT(bpfhost_map_create_sized);
EXPORT(bpfhost_map_create);
EXPORT(bpfhost_map_lookup);
EXPORT(bpfhost_map_update);
EXPORT(bpfhost_map_delete);
EXPORT(bpfhost_map_get_next_key);
EXPORT(bpfhost_prog_load);
EXPORT(bpfhost_prog_test_run_sized);
EXPORT(bpfhost_prog_test_run);
EXPORT(bpfhost_prepare);
EXPORT(bpfhost_install);
EXPORT(bpfhost_prepared_free);
EXPORT(bpfhost_close);
EXPORT(bpfhost_close_all);
EXPORT(bpfhost_frame_of_tenant);
EXPORT(bpfhost_are_of_one_tenant);
EXPORT(bpfhost_restore);
EXPORT(bpfhost_give_as);
EXPORT(bpfhost_restore_as);
EXPORT(bpfhost_code_text);
EXPORT(bpfhost_reason_text);
