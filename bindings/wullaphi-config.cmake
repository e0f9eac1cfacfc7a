# Defines wullaphi::wullaphi, the shared library, and wullaphi::static, the static one.
get_filename_component(_wullaphi "${CMAKE_CURRENT_LIST_DIR}/../../.." ABSOLUTE)
if(NOT TARGET wullaphi::wullaphi)
  add_library(wullaphi::wullaphi SHARED IMPORTED)
  set_target_properties(wullaphi::wullaphi PROPERTIES IMPORTED_LOCATION "${_wullaphi}/lib/libwullaphi.so"
    IMPORTED_SONAME libwullaphi.so.1 INTERFACE_INCLUDE_DIRECTORIES "${_wullaphi}/include")
  add_library(wullaphi::static STATIC IMPORTED)
  set_target_properties(wullaphi::static PROPERTIES IMPORTED_LOCATION "${_wullaphi}/lib/libwullaphi.a"
    INTERFACE_INCLUDE_DIRECTORIES "${_wullaphi}/include")
endif()
unset(_wullaphi)
