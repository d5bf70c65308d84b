/* The reference implementation's permissions of roles. See parts.h. */
#include "parts.h"

enum { SURVEYOR = 1, PLANNER = 2, MANAGER = 3 };

/* "Role 1, surveyor, may append and load, or ask these; role 2, planner, everything" */
int may_change(uint64_t role, enum change_kind kind)
{
    return role == PLANNER || (role == SURVEYOR && (kind == CHANGE_APPEND || kind == CHANGE_LOAD));
}

int may_settle(uint64_t role)
{
    return role == PLANNER;
}

/* "role 3, manager, draw, judge and ask the cause"; a pooled reply is "judged by roles 2 and 3" */
int may_audit(uint64_t role)
{
    return role == PLANNER || role == MANAGER;
}
