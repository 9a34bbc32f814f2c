# find_package(bpfhost) gives the targets bpfhost::bpfhost, the shared library, bpfhost::static, and bpfhost::filter, the header for filters.
get_filename_component(_bpfhost_libraries "${CMAKE_CURRENT_LIST_DIR}/../.." ABSOLUTE)
get_filename_component(_bpfhost_prefix "${_bpfhost_libraries}/.." ABSOLUTE)
# Below lib/x86_64-linux-gnu, as Debian has it, the prefix is one folder further up.
if(NOT EXISTS "${_bpfhost_prefix}/include/bpfhost.h")
    get_filename_component(_bpfhost_prefix "${_bpfhost_prefix}/.." ABSOLUTE)
endif()
if(NOT TARGET bpfhost::bpfhost)
    add_library(bpfhost::bpfhost SHARED IMPORTED)
    set_target_properties(bpfhost::bpfhost PROPERTIES
        IMPORTED_LOCATION "${_bpfhost_libraries}/libbpfhost.so.@VERSION@"
        IMPORTED_SONAME "libbpfhost.so.@SOVERSION@"
        INTERFACE_INCLUDE_DIRECTORIES "${_bpfhost_prefix}/include")
    add_library(bpfhost::static STATIC IMPORTED)
    set_target_properties(bpfhost::static PROPERTIES
        IMPORTED_LOCATION "${_bpfhost_libraries}/libbpfhost.a"
        INTERFACE_INCLUDE_DIRECTORIES "${_bpfhost_prefix}/include")
    add_library(bpfhost::filter INTERFACE IMPORTED)
    set_target_properties(bpfhost::filter PROPERTIES
        INTERFACE_INCLUDE_DIRECTORIES "${_bpfhost_prefix}/include")
endif()
