# find_package(lwkt) gives the targets lwkt::lwkt, the shared library, and lwkt::static, the archive.
get_filename_component(lwkt_prefix "${CMAKE_CURRENT_LIST_FILE}" REALPATH)
string(REPLACE "/@libdir@/cmake/lwkt/lwktConfig.cmake" "" lwkt_prefix "${lwkt_prefix}")
if(NOT TARGET lwkt::lwkt)
    add_library(lwkt::lwkt SHARED IMPORTED)
    set_target_properties(lwkt::lwkt PROPERTIES
        IMPORTED_LOCATION "${lwkt_prefix}/@libdir@/liblwkt.so"
        INTERFACE_INCLUDE_DIRECTORIES "${lwkt_prefix}/include")
    add_library(lwkt::static STATIC IMPORTED)
    set_target_properties(lwkt::static PROPERTIES
        IMPORTED_LOCATION "${lwkt_prefix}/@libdir@/liblwkt.a"
        INTERFACE_INCLUDE_DIRECTORIES "${lwkt_prefix}/include")
endif()
unset(lwkt_prefix)
