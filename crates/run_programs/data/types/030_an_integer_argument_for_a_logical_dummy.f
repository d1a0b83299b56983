      LOGICAL NOTP,P
      NOTP(P)=.NOT.P
      P=NOTP(.TRUE.)
      P=NOTP(0)
      END
