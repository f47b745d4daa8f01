# For find_package(felosumay). On Linux: the targets felosumay::felosumay, the shared library, and felosumay::static, the static one with
# the heap's functions over malloc. For firmware felosumay::static is the library of the processor that CMAKE_SYSTEM_PROCESSOR names, without
# a heap; where it isn't installed for that one, it is the portable C, compiled with the firmware. c/install writes the first four lines.
set(felosumay_prefix "/usr/local")
set(felosumay_includedir "${felosumay_prefix}/include")
set(felosumay_libdir "${felosumay_prefix}/lib")
set(felosumay_soname "libfelosumay.so.0.1")
set(felosumay_VERSION "0.1.0")

# Which library of lib/felosumay is that of a processor, by a name that toolchains' files have for it.
set(felosumay_processor "${CMAKE_SYSTEM_PROCESSOR}")
string(TOLOWER "${felosumay_processor}" felosumay_processor)
string(REPLACE "m0+" "m0plus" felosumay_processor "${felosumay_processor}")
if(felosumay_processor STREQUAL "cortex-m4")
    set(felosumay_processor "cortex-m4f")
elseif(felosumay_processor STREQUAL "aarch64" AND CMAKE_CROSSCOMPILING)
    set(felosumay_processor "aarch64-linux-gnu")
elseif(felosumay_processor MATCHES "^(riscv32|riscv|rv32)$")
    set(felosumay_processor "rv32imc")
endif()
set(felosumay_archive "${felosumay_libdir}/felosumay/${felosumay_processor}/libfelosumay.a")
set(felosumay_core "${felosumay_prefix}/share/felosumay/felosumay_core.c")

if(TARGET felosumay::static)
    # It was found before.
elseif(EXISTS "${felosumay_archive}")
    add_library(felosumay::static STATIC IMPORTED)
    set_target_properties(felosumay::static PROPERTIES
        IMPORTED_LOCATION "${felosumay_archive}"
        INTERFACE_INCLUDE_DIRECTORIES "${felosumay_includedir}")
elseif(CMAKE_CROSSCOMPILING AND EXISTS "${felosumay_core}")
    add_library(felosumay::static INTERFACE IMPORTED)
    set_target_properties(felosumay::static PROPERTIES
        INTERFACE_SOURCES "${felosumay_core}"
        INTERFACE_INCLUDE_DIRECTORIES "${felosumay_includedir}")
else()
    add_library(felosumay::felosumay SHARED IMPORTED)
    set_target_properties(felosumay::felosumay PROPERTIES
        IMPORTED_LOCATION "${felosumay_libdir}/${felosumay_soname}"
        IMPORTED_SONAME "${felosumay_soname}"
        INTERFACE_INCLUDE_DIRECTORIES "${felosumay_includedir}")
    add_library(felosumay::heap STATIC IMPORTED)
    set_target_properties(felosumay::heap PROPERTIES IMPORTED_LOCATION "${felosumay_libdir}/libfelosumay_heap.a")
    add_library(felosumay::static STATIC IMPORTED)
    set_target_properties(felosumay::static PROPERTIES
        IMPORTED_LOCATION "${felosumay_libdir}/libfelosumay.a"
        INTERFACE_LINK_LIBRARIES felosumay::heap
        INTERFACE_INCLUDE_DIRECTORIES "${felosumay_includedir}")
endif()
