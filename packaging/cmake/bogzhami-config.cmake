# For find_package(bogzhami): the targets bogzhami::bogzhami, the shared library, and bogzhami::static, the static one.
if(NOT TARGET bogzhami::bogzhami)
  get_filename_component(_bogzhami_lib "${CMAKE_CURRENT_LIST_DIR}/../.." REALPATH)
  get_filename_component(_bogzhami_include "${_bogzhami_lib}/@UP@/include" ABSOLUTE)
  add_library(bogzhami::bogzhami SHARED IMPORTED)
  set_target_properties(bogzhami::bogzhami PROPERTIES
    IMPORTED_LOCATION "${_bogzhami_lib}/libbogzhami.so"
    IMPORTED_SONAME "libbogzhami.so.@MAJOR@"
    INTERFACE_INCLUDE_DIRECTORIES "${_bogzhami_include}")
  add_library(bogzhami::static STATIC IMPORTED)
  set_target_properties(bogzhami::static PROPERTIES
    IMPORTED_LOCATION "${_bogzhami_lib}/libbogzhami.a"
    INTERFACE_INCLUDE_DIRECTORIES "${_bogzhami_include}")
  unset(_bogzhami_lib)
  unset(_bogzhami_include)
endif()
