      INTEGER WHILE
      DO WHILE=1,4
      K=K+WHILE
      END DO
      DO 10 WHILE=9,7,-1
      K=K+100*WHILE
   10 END DO
      WRITE (6,20) WHILE,K
   20 FORMAT (2I5)
      END
