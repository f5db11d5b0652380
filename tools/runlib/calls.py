"""The system calls of Linux on 64-bit RISC-V: their names, and which of them the program has."""
from __future__ import annotations

from typing import Dict, Optional

# Names by the number of the first of each run (Linux's asm-generic/unistd.h).
RUNS = {
    0: """
        io_setup io_destroy io_submit io_cancel io_getevents setxattr lsetxattr fsetxattr getxattr lgetxattr
        fgetxattr listxattr llistxattr flistxattr removexattr lremovexattr fremovexattr getcwd
        lookup_dcookie eventfd2 epoll_create1 epoll_ctl epoll_pwait dup dup3 fcntl inotify_init1
        inotify_add_watch inotify_rm_watch ioctl ioprio_set ioprio_get flock mknodat mkdirat unlinkat
        symlinkat linkat""",
    39: """
        umount2 mount pivot_root nfsservctl statfs fstatfs truncate ftruncate fallocate faccessat chdir
        fchdir chroot fchmod fchmodat fchownat fchown openat close vhangup pipe2 quotactl getdents64 lseek
        read write readv writev pread64 pwrite64 preadv pwritev sendfile pselect6 ppoll signalfd4 vmsplice
        splice tee readlinkat newfstatat fstat sync fsync fdatasync sync_file_range timerfd_create
        timerfd_settime timerfd_gettime utimensat acct capget capset personality exit exit_group waitid
        set_tid_address unshare futex set_robust_list get_robust_list nanosleep getitimer setitimer
        kexec_load init_module delete_module timer_create timer_gettime timer_getoverrun timer_settime
        timer_delete clock_settime clock_gettime clock_getres clock_nanosleep syslog ptrace sched_setparam
        sched_setscheduler sched_getscheduler sched_getparam sched_setaffinity sched_getaffinity sched_yield
        sched_get_priority_max sched_get_priority_min sched_rr_get_interval restart_syscall kill tkill
        tgkill sigaltstack rt_sigsuspend rt_sigaction rt_sigprocmask rt_sigpending rt_sigtimedwait
        rt_sigqueueinfo rt_sigreturn setpriority getpriority reboot setregid setgid setreuid setuid
        setresuid getresuid setresgid getresgid setfsuid setfsgid times setpgid getpgid getsid setsid
        getgroups setgroups uname sethostname setdomainname getrlimit setrlimit getrusage umask prctl getcpu
        gettimeofday settimeofday adjtimex getpid getppid getuid geteuid getgid getegid gettid sysinfo
        mq_open mq_unlink mq_timedsend mq_timedreceive mq_notify mq_getsetattr msgget msgctl msgrcv msgsnd
        semget semctl semtimedop semop shmget shmctl shmat shmdt socket socketpair bind listen accept
        connect getsockname getpeername sendto recvfrom setsockopt getsockopt shutdown sendmsg recvmsg
        readahead brk munmap mremap add_key request_key keyctl clone execve mmap fadvise64 swapon swapoff
        mprotect msync mlock munlock mlockall munlockall mincore madvise remap_file_pages mbind
        get_mempolicy set_mempolicy migrate_pages move_pages rt_tgsigqueueinfo perf_event_open accept4
        recvmmsg""",
    258: "riscv_hwprobe riscv_flush_icache wait4 prlimit64 fanotify_init fanotify_mark",
    266: """
        clock_adjtime syncfs setns sendmmsg process_vm_readv process_vm_writev kcmp finit_module
        sched_setattr sched_getattr renameat2 seccomp getrandom memfd_create bpf execveat userfaultfd
        membarrier mlock2 copy_file_range preadv2 pwritev2 pkey_mprotect pkey_alloc pkey_free statx
        io_pgetevents rseq kexec_file_load""",
    424: """
        pidfd_send_signal io_uring_setup io_uring_enter io_uring_register open_tree move_mount fsopen
        fsconfig fsmount fspick pidfd_open clone3 close_range openat2 pidfd_getfd faccessat2 process_madvise
        epoll_pwait2 mount_setattr quotactl_fd landlock_create_ruleset landlock_add_rule
        landlock_restrict_self memfd_secret process_mrelease futex_waitv set_mempolicy_home_node cachestat
        fchmodat2""",
    454: """
        futex_wake futex_wait futex_requeue statmount listmount lsm_get_self_attr lsm_set_self_attr
        lsm_list_modules""",
}

NAMES: Dict[int, str] = {first + at: name for first, names in RUNS.items() for at, name in enumerate(names.split())}

# What the program has, as docs/GUESTS.md lists it.
PROFILE = frozenset({
    17, 23, 24, 25, 29, 34, 35, 36, 37, 46, 48, 49, 53, 56, 57, 59, 61, 62, 63, 64, 65, 66, 67, 68, 73, 78, 79, 80, 93,
    94, 96, 99, 101, 102, 103, 113, 115, 124, 129, 130, 131, 134, 135, 139, 160, 166, 169, 172, 173, 174, 175, 176, 177,
    178, 214, 215, 216, 220, 221, 222, 226, 233, 260, 261, 276, 278, 291, 293})

# What each of these calls takes, where anything else ends the run.
TAKEN = {
    25: "the commands F_DUPFD, F_DUPFD_CLOEXEC, F_GETFD, F_SETFD, F_GETFL and F_SETFL, and no locks, owners or sizes",
    56: "O_WRONLY, O_RDWR, O_CREAT, O_EXCL, O_TRUNC, O_APPEND, O_NONBLOCK, O_DIRECTORY, O_NOFOLLOW, O_CLOEXEC, "
        "O_NOCTTY and O_LARGEFILE, and not O_PATH, O_TMPFILE, O_SYNC, O_DSYNC, O_DIRECT, O_ASYNC, O_NOATIME or the "
        "access mode 3",
    73: "no signal mask",
    102: "ITIMER_REAL, and neither ITIMER_VIRTUAL nor ITIMER_PROF",
    103: "ITIMER_REAL, and neither ITIMER_VIRTUAL nor ITIMER_PROF",
    129: "the id of one process and a signal below 18, and no process group, -1, or signal from 18 on",
    130: "a signal below 18, and none from 18 on",
    131: "a signal below 18, and none from 18 on",
    220: "SIGCHLD with CLONE_PARENT_SETTID, CLONE_CHILD_SETTID and CLONE_CHILD_CLEARTID, and neither CLONE_VM nor "
         "CLONE_VFORK, so no threads, posix_spawn, system or popen: use fork and execve",
    222: "MAP_PRIVATE with MAP_ANONYMOUS, MAP_FIXED, MAP_NORESERVE and MAP_STACK, and no files or shared mappings",
    260: "an id from -1 on, and no process group below -1",
}

# Why programs make some of the calls that are not there, and what to do about it.
INSTEAD = {
    98: "there are no threads",
    133: "a shell's `wait` makes it: wait for the end of a pipe",
    153: "a shell's `times` makes it",
    163: "a shell's `ulimit` makes it",
    198: "there is no network",
    435: "there are no threads: use fork",
    439: "a shell's `test -x` makes it: build dash with ac_cv_func_faccessat=no",
}

PAGE = "docs/GUESTS.md, \"The system calls\""


def told_unsupported(pid: int, number: int) -> str:
    """Why a call has ended a run. A report has its number alone, and not what it was handed."""
    if number not in NAMES:
        return f"process {pid} made the system call {number}, which Linux does not have either ({PAGE})"
    call = f"the system call {NAMES[number]} ({number})"
    if number in TAKEN:
        return f"process {pid} asked {call} for what this version lacks: it takes {TAKEN[number]} ({PAGE})"
    if number in PROFILE:
        return f"process {pid} asked {call} for what this version lacks ({PAGE})"
    hint: Optional[str] = INSTEAD.get(number)
    return f"process {pid} made {call}, which this version lacks{': ' + hint if hint else ''} ({PAGE})"
