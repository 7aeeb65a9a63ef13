# find_package(yakyrombe) gives three targets:
#   yakyrombe::yakyrombe  the handles of yakyrombe.h, a static library
#   yakyrombe::journal    the same with journals as text, and with seed.h
#   yakyrombe::mqueue     the calls of <mqueue.h> as exported symbols, a shared library
include(CMakeFindDependencyMacro)
set(THREADS_PREFER_PTHREAD_FLAG ON)
find_dependency(Threads)

if(NOT TARGET yakyrombe::yakyrombe)
  get_filename_component(_yakyrombe_headers "${CMAKE_CURRENT_LIST_DIR}/@HEADERS@" ABSOLUTE)
  get_filename_component(_yakyrombe_libraries "${CMAKE_CURRENT_LIST_DIR}/../.." ABSOLUTE)

  add_library(yakyrombe::yakyrombe STATIC IMPORTED)
  set_target_properties(yakyrombe::yakyrombe PROPERTIES
    IMPORTED_LOCATION "${_yakyrombe_libraries}/libyakyrombe.a"
    INTERFACE_INCLUDE_DIRECTORIES "${_yakyrombe_headers}"
    INTERFACE_LINK_LIBRARIES Threads::Threads)

  add_library(yakyrombe::journal STATIC IMPORTED)
  set_target_properties(yakyrombe::journal PROPERTIES
    IMPORTED_LOCATION "${_yakyrombe_libraries}/libyakyrombe-journal.a"
    INTERFACE_INCLUDE_DIRECTORIES "${_yakyrombe_headers}"
    INTERFACE_LINK_LIBRARIES yakyrombe::yakyrombe)

  add_library(yakyrombe::mqueue SHARED IMPORTED)
  set_target_properties(yakyrombe::mqueue PROPERTIES
    IMPORTED_LOCATION "${_yakyrombe_libraries}/libyakyrombe-mqueue.so.@VERSION@"
    IMPORTED_SONAME "libyakyrombe-mqueue.so.@VERSION@"
    INTERFACE_INCLUDE_DIRECTORIES "${_yakyrombe_headers}")

  unset(_yakyrombe_headers)
  unset(_yakyrombe_libraries)
endif()
