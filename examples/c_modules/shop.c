/* A module that calls a module: `shop` asks `bank` to take an amount, and then answers its own caller. */
#include "sancus.h"

#define SHOP_TEXT 0x1000
#define SHOP_DATA 0x1100
#define BANK_TEXT 0x1200
#define BANK_ID 1 /* its boot in the layout */

SM_DATA(bank) unsigned balance = 40;

SM_FUNCTION(bank) unsigned take(unsigned amount)
{
    balance -= amount;
    return 1;
}

SM_BSS(shop) unsigned stack_of_caller, return_address, waiting;

/* Entry 0, where the bank's answer comes in. Anyone may jump here, so it asks who did. */
SM_FUNCTION(shop) unsigned answered(unsigned answer)
{
    if (sm_caller_id() != BANK_ID || !waiting)
        return 0;
    waiting = 0;
    SM_CALLER_STACK(SHOP_DATA) = stack_of_caller;
    SM_RETURN_ADDRESS(SHOP_DATA) = return_address;
    return answer + 1;
}

/* Entry 1. */
SM_FUNCTION(shop) unsigned buy(unsigned amount)
{
    if (waiting)
        return 0;
    waiting = 1;
    stack_of_caller = SM_CALLER_STACK(SHOP_DATA);
    return_address = SM_RETURN_ADDRESS(SHOP_DATA);
    SM_LEAVE_FOR(BANK_TEXT, 0, amount, SHOP_TEXT);
}

SM_START(0x0e00);

int main(void)
{
    unsigned answer = SM_CALL(SHOP_TEXT, 1, 7);
    SERIAL_DATA = '0' + answer;
    for (;;)
        ;
}
