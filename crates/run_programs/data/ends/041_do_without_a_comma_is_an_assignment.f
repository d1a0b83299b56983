      INTEGER DOI,DO10I
      DO I=7
      DO 10 I=8
      DO I=1,3
      K=K+DOI*DO10I
      END DO
      WRITE (6,10) I,K,DOI,DO10I
   10 FORMAT (4I4)
      END
