C TURNS 17
      N=2
      M=1
      DO 10 I=1,20
   10 K=K+(N-M)*I-N
      END
