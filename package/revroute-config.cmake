# The installed libraries of revroute, for find_package(revroute CONFIG):
#
#   revroute::revroute   the shared library
#   revroute::static     the static library
get_filename_component(_revroute_prefix "${CMAKE_CURRENT_LIST_DIR}/../../.." ABSOLUTE)

if(NOT TARGET revroute::revroute)
    add_library(revroute::revroute SHARED IMPORTED)
    set_target_properties(revroute::revroute PROPERTIES
        IMPORTED_LOCATION "${_revroute_prefix}/lib/librevroute.so"
        INTERFACE_INCLUDE_DIRECTORIES "${_revroute_prefix}/include")
    add_library(revroute::static STATIC IMPORTED)
    set_target_properties(revroute::static PROPERTIES
        IMPORTED_LOCATION "${_revroute_prefix}/lib/librevroute.a"
        INTERFACE_INCLUDE_DIRECTORIES "${_revroute_prefix}/include")
endif()

unset(_revroute_prefix)
