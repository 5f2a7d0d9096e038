# find_package(emulate) gives three targets, of which a host links one:
#   emulate::emulate   the archive
#   emulate::prefixed  the archive with emulate_run and emulate_constant_value alone; EMULATE_PREFIXED is defined
#   emulate::shared    the shared library
get_filename_component(emulate_prefix "${CMAKE_CURRENT_LIST_DIR}" REALPATH)
get_filename_component(emulate_prefix "${emulate_prefix}/../../.." ABSOLUTE)

if(NOT TARGET emulate::emulate)
    add_library(emulate::emulate STATIC IMPORTED)
    set_target_properties(emulate::emulate PROPERTIES
        IMPORTED_LOCATION "${emulate_prefix}/lib/libemulate.a"
        INTERFACE_INCLUDE_DIRECTORIES "${emulate_prefix}/include")
    add_library(emulate::prefixed STATIC IMPORTED)
    set_target_properties(emulate::prefixed PROPERTIES
        IMPORTED_LOCATION "${emulate_prefix}/lib/libemulate_prefixed.a"
        INTERFACE_INCLUDE_DIRECTORIES "${emulate_prefix}/include"
        INTERFACE_COMPILE_DEFINITIONS EMULATE_PREFIXED=)
    add_library(emulate::shared SHARED IMPORTED)
    set_target_properties(emulate::shared PROPERTIES
        IMPORTED_LOCATION "${emulate_prefix}/lib/libemulate.so.@VERSION@"
        IMPORTED_SONAME "libemulate.so.@MAJOR@"
        INTERFACE_INCLUDE_DIRECTORIES "${emulate_prefix}/include")
endif()
unset(emulate_prefix)
