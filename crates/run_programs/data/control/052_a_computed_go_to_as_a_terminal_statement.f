      DO 20 I=1,9
      K=K+1
      GO TO 20
   10 K=K+10
      L=L+1
   20 GO TO (10,30),K/5-L
   30 WRITE (6,40) I,K,L
   40 FORMAT (3I4)
      END
