"""Takes away from Python what it does not have on Windows. Python reads this file before a program, by the name sitecustomize."""
import os
import signal
import sys

MODULES = 'crypt curses fcntl grp nis ossaudiodev pty pwd readline resource spwd syslog termios tty'.split()
CALLS = 'fork forkpty getegid geteuid getgid getpgid getuid killpg mkfifo nice openpty sched_getaffinity setpgid setsid statvfs uname wait3 wait4'
SIGNALS = 'SIGALRM SIGCHLD SIGHUP SIGPIPE SIGQUIT SIGTSTP SIGUSR1 SIGUSR2 SIGWINCH alarm pause pthread_kill pthread_sigmask setitimer'

sys.modules.update(dict.fromkeys(MODULES))
for module, names in ((os, CALLS), (signal, SIGNALS)):
    for name in names.split():
        if hasattr(module, name):
            delattr(module, name)
