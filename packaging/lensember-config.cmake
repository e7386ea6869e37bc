# The installed library as the target lensember::lensember, with its headers.
#
# The prefix is three folders up from this file, wherever it is moved. Links are
# followed first: /lib may be one to /usr/lib.
get_filename_component(lensember_prefix "${CMAKE_CURRENT_LIST_DIR}" REALPATH)
get_filename_component(lensember_prefix "${lensember_prefix}/../../.." ABSOLUTE)

if(NOT TARGET lensember::lensember)
    add_library(lensember::lensember STATIC IMPORTED)
    set_target_properties(lensember::lensember PROPERTIES
        IMPORTED_LOCATION "${lensember_prefix}/lib/liblensember.a"
        INTERFACE_INCLUDE_DIRECTORIES "${lensember_prefix}/include")
endif()

unset(lensember_prefix)
