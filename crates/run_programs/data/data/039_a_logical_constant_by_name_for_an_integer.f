      LOGICAL YES
      PARAMETER (YES=.TRUE.)
      DATA I/YES/
      END
