"""What gridmaster has of each kind of object; of the rest, when nothing is lost without it, and why it is left out."""
import re

TIME_LIMITS = ("s_rt", "h_rt", "s_cpu", "h_cpu")
SIZE_LIMITS = tuple(side + what for what in ("fsize", "data", "stack", "core", "rss", "vmem") for side in ("s_", "h_"))
LISTS = ("user_lists", "xuser_lists", "projects", "xprojects")
# Folder, word of qconf behind -A, word behind -d, attribute of the name.
KINDS = {"e": ("execution", "e", "hostname"), "hgrp": ("hostgroups", "hgrp", "group_name"), "u": ("usersets", "ul", "name"),
         "prj": ("projects", "prj", "name"), "user": ("users", "user", "name"), "p": ("pe", "p", "pe_name"),
         "q": ("cqueues", "q", "qname"), "rqs": ("resource_quotas", "rqs", "name")}
KNOWN = {
    "e": "hostname complex_values", "hgrp": "group_name hostlist", "u": "name entries", "user": "name oticket fshare",
    "prj": "name oticket fshare acl xacl", "p": "pe_name slots user_lists xuser_lists allocation_rule urgency_slots",
    "q": "qname hostlist seq_no load_thresholds pe_list complex_values slots " + " ".join(LISTS + TIME_LIMITS + SIZE_LIMITS),
    "sconf": """schedule_interval maxujobs queue_sort_method load_formula weight_priority weight_urgency weight_ticket
        weight_waiting_time weight_deadline weight_tickets_functional weight_tickets_share weight_user weight_project
        weight_job halftime max_reservation default_duration usage_weight_list max_pending_tasks_per_job"""}
# Attributes that gridmaster hasn't: the values at which nothing is lost, or * for any; and why another one is left out.
IDLE = {
    "q": """
        nsuspend * | ; suspend_interval * | ; min_cpu_interval * | ; qtype * |
        processors UNDEFINED | ; tmpdir /tmp | ; notify 00:00:60 |
        suspend_thresholds NONE | nothing is suspended here
        subordinate_list NONE | nothing is suspended here
        calendar NONE | there are no calendars: give the queue slots 0 in time, or book it by qrsub
        prolog NONE | there are no prologs
        epilog NONE | there are no epilogs
        starter_method NONE | there are no starters
        suspend_method NONE | nothing is suspended here
        resume_method NONE | nothing is suspended here
        terminate_method NONE | a job is ended by a kill
        shell /bin/sh,/bin/csh | a queue doesn't choose the shell
        shell_start_mode posix_compliant | a queue doesn't choose the shell
        ckpt_list NONE | there is no checkpointing
        rerun FALSE | a task runs again at exit status 99 alone
        priority 0 | no nice value is set
        owner_list NONE | owners of a queue have no rights
        initial_state default,enabled | there are no disabled queues: give it slots 0""",
    "p": """
        accounting_summary * | ; qsort_args NONE | no library sorts
        start_proc_args NONE,/bin/true | there are no start and stop procedures
        stop_proc_args NONE,/bin/true | there are no start and stop procedures
        control_slaves FALSE | there is no tight integration
        job_is_first_task TRUE | no slot is added for the script""",
    "e": """
        load_values * | ; processors * | ; user_lists * | ; xuser_lists * | ; projects * | ; xprojects * |
        report_variables NONE | there are no reports
        load_scaling NONE | loads count as they are reported
        usage_scaling NONE | usage counts as it is reported""",
    "u": """
        type * |
        fshare 0 | there are no departments
        oticket 0 | there are no departments""",
    "user": """
        delete_time * |
        default_project NONE | a job without -P has no project""",
    "sconf": """
        load_adjustment_decay_time * | ; reprioritize_interval * | ; compensation_factor * | ; schedd_job_info * |
        max_functional_jobs_to_schedule * | ; report_pjob_tickets * | ; weight_department * |
        algorithm default | there is one alone
        job_load_adjustments NONE | a start adds no load, so one run fills up the hosts of least load
        flush_submit_sec 0 | runs come by schedule_interval alone
        flush_finish_sec 0 | runs come by schedule_interval alone
        params none,DURATION_OFFSET=0 | there are no such parameters, and no offset is added to a duration
        share_override_tickets TRUE | tickets are always shared
        share_functional_shares TRUE | shares are always split
        policy_hierarchy OFS | all tickets are added
        halflife_decay_list none | halftime counts for all usage"""}
# What the cluster configuration may say, the value at which nothing is lost, and why it is left out.
GLOBAL = """
    user_lists none | name the sets in the queues; xuser_lists none | name the sets in the queues
    projects none | name the projects in the queues; xprojects none | name the projects in the queues
    enforce_project false | jobs without a project are taken; jsv_url none | there are no JSVs
    max_u_jobs 0 | there is no such bound; max_jobs 0 | 100,000 jobs may live
    max_aj_instances 2000 | there is no such bound; max_aj_tasks 75000 | a job has at most 75,000 tasks
    auto_user_fshare 0 | a user without a row has 0; auto_user_oticket 0 | a user without a row has 0
    auto_user_default_project none | a job without -P has no project
    prolog none | there are no prologs; epilog none | there are no epilogs
    reschedule_unknown 00:00:00 | nothing is rescheduled by itself; load_sensor none | report loads by `load`"""
# Files that nothing here belongs to.
ALONE = {"admin_hosts": "requests come from this machine alone", "submit_hosts": "requests come from this machine alone",
         "cell/sge_request": "there are no default options", "cell/sge_ar_request": "there are no default options",
         "cell/sge_aliases": "no paths are mapped", "cell/host_aliases": "host names are taken as they are",
         "cell/qtask": "there is no qtcsh", "cell/accounting": "old accounting lines stay there"}
OBJECTS_ALONE = {"calendars": "there are no calendars", "ckpt": "there is no checkpointing"}


def usual_values(table):
    """Of each attribute of such a table the values at which nothing is lost, and why another one is left out."""
    usual = {}
    for entry in filter(str.strip, re.split(r"[;\n]", table)):
        words, _, why = entry.partition("|")
        attribute, _, values = words.strip().partition(" ")
        usual[attribute] = (values.strip(), why.strip() or "it has no effect here")
    return usual
