# What tests/run and tests/long share. It is sourced; the tests run so far are counted in `passed` and `failed`.
passed=0
failed=0

# The programs that tests need beside the kit, each with the Debian package that has it.
programs="python3:python3 gcc:gcc g++:g++ cargo:cargo valgrind:valgrind pkg-config:pkg-config make:make"
programs="$programs cargo-clippy:rust-clippy cargo-fmt:rustfmt"

# is_there WHAT: whether a program or a file is there. `cargo clippy` and `cargo fmt` are there if cargo can run them.
is_there() {
  case $1 in
    */*) [ -e "$1" ] ;;
    cargo-*) cargo "${1#cargo-}" --version >/dev/null 2>&1 ;;
    *) command -v "$1" >/dev/null ;;
  esac
}

# package_of PROGRAM: its Debian package; nothing for a file.
package_of() {
  local pair
  for pair in $programs; do
    if [ "${pair%:*}" = "$1" ]; then echo "${pair#*:}"; fi
  done
}

# missing_packages PROGRAM..: the Debian packages of those programs that are not there, each in a line.
missing_packages() {
  local program
  for program in "$@"; do
    is_there "$program" || package_of "$program"
  done
}

# set_up PROGRAM..: installs what is missing of these programs, if the user is root; else says what to install.
set_up() {
  local packages package
  mapfile -t packages < <(missing_packages "$@")
  if [ "${#packages[@]}" -gt 0 ] && [ "$(id -u)" -eq 0 ] && is_there apt-get; then
    echo "set-up: these Debian packages are missing, and are installed now: ${packages[*]}"
    apt-get update
    for package in "${packages[@]}"; do
      echo "set-up: apt-get install $package"
      DEBIAN_FRONTEND=noninteractive apt-get install -y "$package"
    done
    mapfile -t packages < <(missing_packages "$@")
  fi
  if [ "${#packages[@]}" -gt 0 ]; then
    echo "set-up: these Debian packages are missing, and tests that need them do not run: ${packages[*]}"
    echo "set-up: install them as root: apt-get install ${packages[*]}"
  fi
}

# run_test NAME COMMAND..: one test, which has passed if the command's exit status is 0.
run_test() {
  local name=$1
  shift
  if "$@"; then
    passed=$((passed + 1))
    echo "test: $name passed"
  else
    failed=$((failed + 1))
    echo "test: $name FAILED"
    return 1
  fi
}

# build_library: the static library, where the hosts look for it.
build_library() {
  (cd crates/fahireky_c && rt lib) || return
  install -D -m 644 crates/fahireky_c/out/libfahireky_c.a target/staticlib/libfahireky.a
}

# finish: the last line, and the exit status.
finish() {
  echo "$passed passed, $failed failed"
  [ "$failed" -eq 0 ]
}
