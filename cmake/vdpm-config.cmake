# The targets vdpm::vdpm, the shared library, and vdpm::static, the archive, of this installation.
get_filename_component(_vdpm_prefix "${CMAKE_CURRENT_LIST_DIR}/../../.." ABSOLUTE)
if(NOT TARGET vdpm::vdpm)
  add_library(vdpm::vdpm SHARED IMPORTED)
  set_target_properties(vdpm::vdpm PROPERTIES
    IMPORTED_LOCATION "${_vdpm_prefix}/lib/@SHARED@"
    IMPORTED_SONAME "@SHARED@"
    INTERFACE_INCLUDE_DIRECTORIES "${_vdpm_prefix}/include")
  add_library(vdpm::static STATIC IMPORTED)
  set_target_properties(vdpm::static PROPERTIES
    IMPORTED_LOCATION "${_vdpm_prefix}/lib/libvdpm.a"
    INTERFACE_INCLUDE_DIRECTORIES "${_vdpm_prefix}/include")
endif()
unset(_vdpm_prefix)
