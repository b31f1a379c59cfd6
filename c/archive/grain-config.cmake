# Targets: grain::grain, the shared library, and grain::static.
get_filename_component(_grain_prefix "${CMAKE_CURRENT_LIST_DIR}/../../.." ABSOLUTE)

if(NOT TARGET grain::grain)
  add_library(grain::grain SHARED IMPORTED)
  set_target_properties(grain::grain PROPERTIES
    IMPORTED_LOCATION "${_grain_prefix}/lib/libgrain.so.@INTERFACE@"
    IMPORTED_SONAME "libgrain.so.@INTERFACE@"
    INTERFACE_INCLUDE_DIRECTORIES "${_grain_prefix}/include")

  add_library(grain::static STATIC IMPORTED)
  set_target_properties(grain::static PROPERTIES
    IMPORTED_LOCATION "${_grain_prefix}/lib/libgrain.a"
    INTERFACE_INCLUDE_DIRECTORIES "${_grain_prefix}/include")
endif()

unset(_grain_prefix)
