# As many report jobs as there may be, 256, and one more.
BEGIN {
    add = "0 storrept reports add /Report:LargeFiles /Scope:D:\\ /Task:"
    for (number = 1; number <= 257; number++) print add "job" number
    print add "JOB7"
    print "0 storrept reports add /Report:LargeFiles /Scope:D:\\x /Task:job257"
    print "0 storrept reports run /Task:JOB7"
    print "0 storrept reports delete /Task:JOB7"
    print add "job257"
    print add "job258"
}
