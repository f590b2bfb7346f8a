# For CMake's find_package(byte_unit). `byte_unit::byte_unit` is the library as the words of pkg-config link it, the
# shared one if that is installed; `byte_unit::static` is the archive.
get_filename_component(_byte_unit_lib "${CMAKE_CURRENT_LIST_DIR}/../.." REALPATH)
if(NOT TARGET byte_unit::byte_unit)
  add_library(byte_unit::static STATIC IMPORTED)
  set_target_properties(byte_unit::static PROPERTIES IMPORTED_LOCATION "${_byte_unit_lib}/libbyte_unit.a"
    INTERFACE_INCLUDE_DIRECTORIES "${_byte_unit_lib}/../include")
  if(EXISTS "${_byte_unit_lib}/libbyte_unit.so")
    add_library(byte_unit::byte_unit SHARED IMPORTED)
    set_target_properties(byte_unit::byte_unit PROPERTIES IMPORTED_LOCATION "${_byte_unit_lib}/libbyte_unit.so"
      INTERFACE_INCLUDE_DIRECTORIES "${_byte_unit_lib}/../include")
  else()
    add_library(byte_unit::byte_unit INTERFACE IMPORTED)
    set_target_properties(byte_unit::byte_unit PROPERTIES INTERFACE_LINK_LIBRARIES byte_unit::static)
  endif()
endif()
unset(_byte_unit_lib)
