/* What tcc has to know of its system: where files are in the image, and that it is a static program. */
#define TCC_VERSION "0.9.27"
#define TCC_TARGET_RISCV64
#define TCC_MUSL
#define CONFIG_TCC_STATIC
#define CONFIG_TCCBOOT
#define CONFIG_TCCDIR "/lib/tcc"
#define CONFIG_TCC_CRTPREFIX "/lib"
#define CONFIG_TCC_LIBPATHS "/lib:{B}"
#define CONFIG_TCC_SYSINCLUDEPATHS "{B}/include:/include"
