      IMPLICIT INTEGER (A-Z)
      ALL(A,B,C,D,E,F,G,H,I,J,K,L,M,N,O,P)=A+2*B+3*C+4*D+5*E+6*F+7*G+8*H
     1+9*I+10*J+11*K+12*L+13*M+14*N+15*O+16*P
      WRITE (6,10) ALL(1,0,0,0,0,0,0,1,1,0,0,0,0,0,1,1)
   10 FORMAT (I3)
      END
