# shellcheck shell=bash disable=SC2034
# How programs are built for processors that qemu emulates, and run. Who sources this has the repository's top in `top`.
: "${top:?}"

# Sets what a processor needs: `cc` its compiler with its words, `emulator` what runs a program, and `packages` Debian's packages.
# On a board without a system (`is_bare`) a program has no command line, and `start` is what it begins by.
describe_processor() {
  local board=mps2-an386 code=0 data=0x21000000
  is_bare=yes start=() flags=()
  case $1 in
    cortex-*)
      cc=(arm-none-eabi-gcc "-mcpu=$1" -mthumb)
      packages='gcc-arm-none-eabi libnewlib-arm-none-eabi qemu-system-arm'
      start=(-nostartfiles -T "$top/c/boards/cortex_m.ld" "$top/c/boards/cortex_m.c" "-Wl,--defsym=data_size=0x1000000")
      case $1 in
        cortex-m0plus | cortex-m3) board=mps2-an385 ;;
        cortex-m33) board=mps2-an505 code=0x10000000 data=0x80000000 ;;
      esac
      start+=("-Wl,--defsym=code_at=$code" "-Wl,--defsym=data_at=$data")
      emulator=(qemu-system-arm -M "$board" -nographic -semihosting-config "enable=on,target=native" -kernel)
      ;;
    rv32imac)
      cc=(riscv64-unknown-elf-gcc --specs=picolibc.specs -march=rv32imac -mabi=ilp32)
      packages='gcc-riscv64-unknown-elf picolibc-riscv64-unknown-elf qemu-system-misc'
      start=(--oslib=semihost --crt0=hosted "-Wl,--defsym=__flash=0x80000000" "-Wl,--defsym=__flash_size=0x200000"
        "-Wl,--defsym=__ram=0x80200000" "-Wl,--defsym=__ram_size=0x1000000" "-Wl,--defsym=__stack_size=0x20000")
      emulator=(qemu-system-riscv32 -M virt -m 32 -bios none -display none -serial none -monitor none -chardev "stdio,id=console"
        -semihosting-config "enable=on,target=native,chardev=console" -kernel)
      ;;
    armhf)
      is_bare='' cc=(arm-linux-gnueabihf-gcc -static) emulator=(qemu-arm)
      packages='gcc-arm-linux-gnueabihf qemu-user'
      ;;
    i686)
      is_bare='' cc=(i686-linux-gnu-gcc -static) emulator=(qemu-i386)
      packages='gcc-i686-linux-gnu qemu-user'
      flags=(-fsanitize=undefined -fsanitize-undefined-trap-on-error)
      ;;
    aarch64)
      is_bare='' cc=(aarch64-linux-gnu-gcc -static) emulator=(qemu-aarch64)
      packages='gcc-aarch64-linux-gnu qemu-user'
      ;;
  esac
}
