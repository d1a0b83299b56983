      PARAMETER (N=1)
      DO 10 N=1,3
   10 CONTINUE
      END
