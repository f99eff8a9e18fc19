# find_package(balisecheck) defines two targets: balisecheck::balisecheck is the shared library, balisecheck::static the
# archive. (The real path: Debian's /lib is a link to /usr/lib.)
if(NOT TARGET balisecheck::balisecheck)
  get_filename_component(balisecheck_libdir "${CMAKE_CURRENT_LIST_FILE}" REALPATH)
  get_filename_component(balisecheck_libdir "${balisecheck_libdir}/../../.." ABSOLUTE)
  get_filename_component(balisecheck_include "${balisecheck_libdir}/../include" ABSOLUTE)
  add_library(balisecheck::balisecheck SHARED IMPORTED)
  set_target_properties(balisecheck::balisecheck PROPERTIES
    IMPORTED_LOCATION "${balisecheck_libdir}/libbalisecheck.so.0"
    IMPORTED_SONAME libbalisecheck.so.0
    INTERFACE_INCLUDE_DIRECTORIES "${balisecheck_include}")
  add_library(balisecheck::static STATIC IMPORTED)
  set_target_properties(balisecheck::static PROPERTIES
    IMPORTED_LOCATION "${balisecheck_libdir}/libbalisecheck.a"
    INTERFACE_INCLUDE_DIRECTORIES "${balisecheck_include}")
endif()
