      INTEGER A(40)
      N=100000000
      M=47483647
      DO 10 I=1,40
   10 A(I)=N*(I-1)+M
      END
