#include <wasm_simd128.h>

void twice(int *place) {
    v128_t four = wasm_v128_load(place);
    wasm_v128_store(place, wasm_i32x4_add(four, four));
}
