/*
 * Ostrogosz: the UCP/GDL90 serial line and MAVLink version 1, for C99 and C++.
 *
 * All parts; a driver may also include one of them alone:
 *   ostrogosz/common.h   what all calls share: target, ABI, refusals, emitters
 *   ostrogosz/ucp.h      the UCP line: frames, receiver, messages
 *   ostrogosz/mavlink.h  MAVLink frames and messages
 *
 * Two archives; link one of them:
 *   libostrogosz.a           everything that is declared here
 *   libostrogosz_receiver.a  the receiver alone
 *
 * Names: ostrogosz_PART_VERB_THING.
 */
#ifndef OSTROGOSZ_H
#define OSTROGOSZ_H

#include "ostrogosz/common.h"
#include "ostrogosz/mavlink.h"
#include "ostrogosz/ucp.h"

#endif
