# The library for C, by find_package(ccan). It gives three targets: ccan::ccan, the shared library, ccan::static, the archive, and
# ccan::checked, the checked library, which reports a broken promise of ccan.h and aborts. The folder may be moved.
get_filename_component(_ccan_libraries "${CMAKE_CURRENT_LIST_DIR}/../.." ABSOLUTE)
set(_ccan_include "${_ccan_libraries}/../include")
if(NOT EXISTS "${_ccan_include}/ccan.h")
    # The library is in a folder of the processor's, such as lib/x86_64-linux-gnu.
    set(_ccan_include "${_ccan_libraries}/../../include")
endif()
get_filename_component(_ccan_include "${_ccan_include}" ABSOLUTE)

if(NOT TARGET ccan::ccan)
    add_library(ccan::ccan SHARED IMPORTED)
    set_target_properties(ccan::ccan PROPERTIES
        IMPORTED_LOCATION "${_ccan_libraries}/@SONAME@"
        IMPORTED_SONAME "@SONAME@"
        INTERFACE_INCLUDE_DIRECTORIES "${_ccan_include}")
    add_library(ccan::static STATIC IMPORTED)
    set_target_properties(ccan::static PROPERTIES
        IMPORTED_LOCATION "${_ccan_libraries}/libccan.a"
        INTERFACE_INCLUDE_DIRECTORIES "${_ccan_include}")
    add_library(ccan::checked STATIC IMPORTED)
    set_target_properties(ccan::checked PROPERTIES
        IMPORTED_LOCATION "${_ccan_libraries}/libccan_checked.a"
        INTERFACE_INCLUDE_DIRECTORIES "${_ccan_include}")
endif()
unset(_ccan_libraries)
unset(_ccan_include)
