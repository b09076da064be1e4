; The functions that the proved module calls for memory, over the C library's malloc, for Windows and ARM64. They are in LLVM's own form,
; because C on Windows returns such a pair in another way. Each returns whether there is a block, and its address; without one, the
; address is never read. No proof covers this file.
declare ptr @malloc(i64)
declare ptr @realloc(ptr, i64)
declare void @free(ptr)

define internal { i64, i64 } @pair(ptr %block, i64 %align) {
  %ok = icmp ne ptr %block, null
  %flag = zext i1 %ok to i64
  %number = ptrtoint ptr %block to i64
  %place = select i1 %ok, i64 %number, i64 %align
  %one = insertvalue { i64, i64 } poison, i64 %flag, 0
  %two = insertvalue { i64, i64 } %one, i64 %place, 1
  ret { i64, i64 } %two
}

define { i64, i64 } @rattle_alloc(i64 %bytes, i64 %align) {
  %none = icmp eq i64 %bytes, 0
  %size = select i1 %none, i64 %align, i64 %bytes
  %block = call ptr @malloc(i64 %size)
  %made = call { i64, i64 } @pair(ptr %block, i64 %align)
  ret { i64, i64 } %made
}

define { i64, i64 } @rattle_realloc(ptr %old, i64 %before, i64 %bytes, i64 %align) {
  %none = icmp eq i64 %bytes, 0
  %size = select i1 %none, i64 %align, i64 %bytes
  %block = call ptr @realloc(ptr %old, i64 %size)
  %made = call { i64, i64 } @pair(ptr %block, i64 %align)
  ret { i64, i64 } %made
}

define void @rattle_dealloc(ptr %block) {
  call void @free(ptr %block)
  ret void
}
