# find_package(interpolator) gives the targets interpolator::interpolator, the static library, and
# interpolator::shared, the shared one.
get_filename_component(interpolator_root "${CMAKE_CURRENT_LIST_DIR}/../../.." ABSOLUTE)

if(NOT TARGET interpolator::interpolator)
  add_library(interpolator::interpolator STATIC IMPORTED)
  set_target_properties(interpolator::interpolator PROPERTIES
    IMPORTED_LOCATION "${interpolator_root}/lib/libinterpolator.a"
    IMPORTED_LINK_INTERFACE_LANGUAGES C
    INTERFACE_INCLUDE_DIRECTORIES "${interpolator_root}/include")
  add_library(interpolator::shared SHARED IMPORTED)
  set_target_properties(interpolator::shared PROPERTIES
    IMPORTED_LOCATION "${interpolator_root}/lib/libinterpolator.so.1"
    IMPORTED_SONAME libinterpolator.so.1
    INTERFACE_INCLUDE_DIRECTORIES "${interpolator_root}/include")
endif()

unset(interpolator_root)
