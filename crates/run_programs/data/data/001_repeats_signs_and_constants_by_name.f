      LOGICAL P,Q,R,YES
      INTEGER A(6)
      PARAMETER (N=3,M=-5,YES=.TRUE.)
      DATA A/1,N*M,2*+7/,P,Q,R/.FALSE.,2*YES/,I,J/-0,+12/
      WRITE (6,10) A,P,Q,R,I,J
   10 FORMAT (6I3,3L2,2I3)
      END
