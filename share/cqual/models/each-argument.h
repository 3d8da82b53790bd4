/* For models: something for each argument in the place of a `...`, by itself. `cqual_each(what, to, a, b)` is
   `(what(to, a), what(to, b), 0)`, for up to 40 arguments, and `cqual_each(what, to)` is `(0)`. */

#define cqual_each(what, to, ...) \
    (cqual_pick(0, ## __VA_ARGS__, \
    cqual_each_40, cqual_each_39, cqual_each_38, cqual_each_37, cqual_each_36, cqual_each_35, cqual_each_34, \
    cqual_each_33, cqual_each_32, cqual_each_31, cqual_each_30, cqual_each_29, cqual_each_28, cqual_each_27, \
    cqual_each_26, cqual_each_25, cqual_each_24, cqual_each_23, cqual_each_22, cqual_each_21, cqual_each_20, \
    cqual_each_19, cqual_each_18, cqual_each_17, cqual_each_16, cqual_each_15, cqual_each_14, cqual_each_13, \
    cqual_each_12, cqual_each_11, cqual_each_10, cqual_each_9, cqual_each_8, cqual_each_7, cqual_each_6, \
    cqual_each_5, cqual_each_4, cqual_each_3, cqual_each_2, cqual_each_1, cqual_each_0) \
    (what, to, ## __VA_ARGS__))
#define cqual_pick(zero, \
    a1, a2, a3, a4, a5, a6, a7, a8, a9, a10, a11, a12, a13, a14, a15, a16, a17, a18, a19, a20, a21, a22, \
    a23, a24, a25, a26, a27, a28, a29, a30, a31, a32, a33, a34, a35, a36, a37, a38, a39, a40, name, ...) \
    name
#define cqual_each_0(what, to) 0
#define cqual_each_1(what, to, it) what(to, it), 0
#define cqual_each_2(what, to, it, ...) what(to, it), cqual_each_1(what, to, __VA_ARGS__)
#define cqual_each_3(what, to, it, ...) what(to, it), cqual_each_2(what, to, __VA_ARGS__)
#define cqual_each_4(what, to, it, ...) what(to, it), cqual_each_3(what, to, __VA_ARGS__)
#define cqual_each_5(what, to, it, ...) what(to, it), cqual_each_4(what, to, __VA_ARGS__)
#define cqual_each_6(what, to, it, ...) what(to, it), cqual_each_5(what, to, __VA_ARGS__)
#define cqual_each_7(what, to, it, ...) what(to, it), cqual_each_6(what, to, __VA_ARGS__)
#define cqual_each_8(what, to, it, ...) what(to, it), cqual_each_7(what, to, __VA_ARGS__)
#define cqual_each_9(what, to, it, ...) what(to, it), cqual_each_8(what, to, __VA_ARGS__)
#define cqual_each_10(what, to, it, ...) what(to, it), cqual_each_9(what, to, __VA_ARGS__)
#define cqual_each_11(what, to, it, ...) what(to, it), cqual_each_10(what, to, __VA_ARGS__)
#define cqual_each_12(what, to, it, ...) what(to, it), cqual_each_11(what, to, __VA_ARGS__)
#define cqual_each_13(what, to, it, ...) what(to, it), cqual_each_12(what, to, __VA_ARGS__)
#define cqual_each_14(what, to, it, ...) what(to, it), cqual_each_13(what, to, __VA_ARGS__)
#define cqual_each_15(what, to, it, ...) what(to, it), cqual_each_14(what, to, __VA_ARGS__)
#define cqual_each_16(what, to, it, ...) what(to, it), cqual_each_15(what, to, __VA_ARGS__)
#define cqual_each_17(what, to, it, ...) what(to, it), cqual_each_16(what, to, __VA_ARGS__)
#define cqual_each_18(what, to, it, ...) what(to, it), cqual_each_17(what, to, __VA_ARGS__)
#define cqual_each_19(what, to, it, ...) what(to, it), cqual_each_18(what, to, __VA_ARGS__)
#define cqual_each_20(what, to, it, ...) what(to, it), cqual_each_19(what, to, __VA_ARGS__)
#define cqual_each_21(what, to, it, ...) what(to, it), cqual_each_20(what, to, __VA_ARGS__)
#define cqual_each_22(what, to, it, ...) what(to, it), cqual_each_21(what, to, __VA_ARGS__)
#define cqual_each_23(what, to, it, ...) what(to, it), cqual_each_22(what, to, __VA_ARGS__)
#define cqual_each_24(what, to, it, ...) what(to, it), cqual_each_23(what, to, __VA_ARGS__)
#define cqual_each_25(what, to, it, ...) what(to, it), cqual_each_24(what, to, __VA_ARGS__)
#define cqual_each_26(what, to, it, ...) what(to, it), cqual_each_25(what, to, __VA_ARGS__)
#define cqual_each_27(what, to, it, ...) what(to, it), cqual_each_26(what, to, __VA_ARGS__)
#define cqual_each_28(what, to, it, ...) what(to, it), cqual_each_27(what, to, __VA_ARGS__)
#define cqual_each_29(what, to, it, ...) what(to, it), cqual_each_28(what, to, __VA_ARGS__)
#define cqual_each_30(what, to, it, ...) what(to, it), cqual_each_29(what, to, __VA_ARGS__)
#define cqual_each_31(what, to, it, ...) what(to, it), cqual_each_30(what, to, __VA_ARGS__)
#define cqual_each_32(what, to, it, ...) what(to, it), cqual_each_31(what, to, __VA_ARGS__)
#define cqual_each_33(what, to, it, ...) what(to, it), cqual_each_32(what, to, __VA_ARGS__)
#define cqual_each_34(what, to, it, ...) what(to, it), cqual_each_33(what, to, __VA_ARGS__)
#define cqual_each_35(what, to, it, ...) what(to, it), cqual_each_34(what, to, __VA_ARGS__)
#define cqual_each_36(what, to, it, ...) what(to, it), cqual_each_35(what, to, __VA_ARGS__)
#define cqual_each_37(what, to, it, ...) what(to, it), cqual_each_36(what, to, __VA_ARGS__)
#define cqual_each_38(what, to, it, ...) what(to, it), cqual_each_37(what, to, __VA_ARGS__)
#define cqual_each_39(what, to, it, ...) what(to, it), cqual_each_38(what, to, __VA_ARGS__)
#define cqual_each_40(what, to, it, ...) what(to, it), cqual_each_39(what, to, __VA_ARGS__)
