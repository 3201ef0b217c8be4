"""The deck that `demo n` runs: n jobs that each add an amount to one total, in a unit of changes of its own, under a lock."""
SETUP = """PROGRAM SETUP
DCL C PTR
DCL D PTR
DCL S PTR
DCL P PTR
DCL K PTR
DCL Z PKD:9:0
CRTCTX C,CONTEXT/00/SHOP,ALL
CRTDS D,C,DATASPACE/00/TOTALS,ALL,PKD:9:0
CRTJS S,C,JSPACE/00/JS,ALL
ENSOBJ S
CRTJP P,C,JPORT/00/JP,ALL,S
ENSOBJ P
JRNLOBJ D,P
CRTCR K,C,CURSOR/00/FIRST,ALL,D,*NONE
INSDSEN K,Z
RTX
END
"""
POST = """PROGRAM POST{number}
DCL C PTR
DCL D PTR
DCL P PTR
DCL B PTR
DCL K PTR
DCL V PKD:9:0
RSLVSP C,*MACHINE,CONTEXT/00/SHOP,NONE
RSLVSP D,C,DATASPACE/00/TOTALS,NONE
RSLVSP P,C,JPORT/00/JP,NONE
CRTCB B,*NONE,CBLOCK/00/B,NONE,P
CRTCR K,*NONE,CURSOR/00/K,NONE,D,B
LOCK D,LENR,WAIT
SETCR K,FIRST,0
RETDSEN V,K
ADDN V,V,{amount}
UPDSEN K,V
COMMIT B
UNLOCK D,LENR
RTX
END
"""
TOTAL = """PROGRAM TOTAL
DCL C PTR
DCL D PTR
DCL K PTR
DCL V PKD:9:0
RSLVSP C,*MACHINE,CONTEXT/00/SHOP,NONE
RSLVSP D,C,DATASPACE/00/TOTALS,NONE
CRTCR K,*NONE,CURSOR/00/K,NONE,D,*NONE
SETCR K,FIRST,0
RETDSEN V,K
RTX
END
"""


def amount(number):
    """What a job adds."""
    return 7 * number % 100 + 1


def deck_of(size):
    """The deck of so many jobs, 1 to 200."""
    posts = "".join(POST.format(number=number, amount=amount(number)) for number in range(1, size + 1))
    jobs = "".join(f"JOB POST{number} USER QSECOFR RUN POST{number}\n" for number in range(1, size + 1))
    return f"{SETUP}{posts}{TOTAL}STAGE\nJOB SETUP USER QSECOFR RUN SETUP\nSTAGE\n{jobs}STAGE\nJOB TOTAL USER QSECOFR RUN TOTAL\n"


def total_of(size):
    """The total that the last job reads."""
    return sum(amount(number) for number in range(1, size + 1))
